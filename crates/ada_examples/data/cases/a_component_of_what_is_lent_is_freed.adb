with Ada.Text_IO; with Ada.Unchecked_Deallocation;
procedure Main is
type Node; type Link is access Node;
type Node is record Value : Integer := 0; Next : Link; end record;
procedure Free is new Ada.Unchecked_Deallocation (Node, Link);
procedure Cut (L : Link) is T : Link; begin T := L.Next; L.Next := null; Free (T); Ada.Text_IO.Put_Line (Integer'Image (L.Value)); end Cut;
A : Link := new Node'(7, null);
begin A.Next := new Node'(8, null); Cut (A); end Main;
