with Ada.Finalization; with Ada.Text_IO; with Ada.Unchecked_Deallocation;
procedure Main is
   type Node;
   type Link is access Node;
   type Node is new Ada.Finalization.Limited_Controlled with record Next : Link; Other : Link; Number : Integer := 1; end record;
   overriding procedure Initialize (Object : in out Node);
   overriding procedure Finalize (Object : in out Node);
   procedure Free is new Ada.Unchecked_Deallocation (Node, Link);
   procedure Drop (N : in out Node) is
   begin
      Free (N.Next);
      N.Number := 2;
   end Drop;
   overriding procedure Initialize (Object : in out Node) is
      Mine : Link;
   begin
      Drop (Object);
      Free (Mine);
      Free (Object.Other);
   end Initialize;
   overriding procedure Finalize (Object : in out Node) is
   begin
      Ada.Text_IO.Put_Line (Integer'Image (Object.Number));
   end Finalize;
   N : Link := new Node;
   M : Link;
begin
   M := new Node;
   M.Number := 3;
   Free (M);
   Ada.Text_IO.Put_Line ("freed");
end Main;
