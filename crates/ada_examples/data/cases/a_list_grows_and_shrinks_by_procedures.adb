with Ada.Text_IO; with Ada.Unchecked_Deallocation;
procedure Main is
type Node; type Link is access Node;
type Node is record Value : Integer := 0; Next : Link; end record;
procedure Free is new Ada.Unchecked_Deallocation (Node, Link);
procedure Push (L : in out Link; N : Integer) is begin L := new Node'(N, L); end Push;
procedure Pop (L : in out Link; N : in out Integer) is T : Link;
begin if L /= null then N := L.Value; T := L.Next; L.Next := null; Free (L); L := T; end if; end Pop;
A : Link; N : Integer := 0;
begin Push (A, 1); Push (A, 2); Push (A, 3); Pop (A, N); Ada.Text_IO.Put_Line (Integer'Image (N)); Pop (A, N); Ada.Text_IO.Put_Line (Integer'Image (N)); Pop (A, N); Pop (A, N); Ada.Text_IO.Put_Line (Integer'Image (N)); end Main;
