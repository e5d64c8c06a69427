with Ada.Finalization; with Ada.Text_IO; with Ada.Unchecked_Deallocation;
procedure Main is
   type Node;
   type Link is access Node;
   type Node is new Ada.Finalization.Limited_Controlled with record Next : Link; Number : Integer := 1; end record;
   overriding procedure Initialize (Object : in out Node);
   procedure Free is new Ada.Unchecked_Deallocation (Node, Link);
   overriding procedure Initialize (Object : in out Node) is
   begin
      Free (Object.Next);
   end Initialize;
   N : Link := new Node;
begin
   Ada.Text_IO.Put_Line (Integer'Image (N.Number));
end Main;
