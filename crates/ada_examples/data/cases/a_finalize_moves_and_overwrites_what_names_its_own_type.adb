with Ada.Finalization; with Ada.Text_IO; with Ada.Unchecked_Deallocation;
procedure Main is
   type Node;
   type Link is access Node;
   type Node is new Ada.Finalization.Limited_Controlled with record Number : Integer := 0; Next : Link; Other : Link; end record;
   overriding procedure Finalize (Object : in out Node);
   procedure Free_Node is new Ada.Unchecked_Deallocation (Node, Link);
   overriding procedure Finalize (Object : in out Node) is
      Kept : Link;
   begin
      Kept := Object.Next;
      Object.Next := null;
      if Kept /= null then
         Ada.Text_IO.Put_Line (Integer'Image (Object.Number));
      end if;
      Object.Other := Kept;
      Kept := null;
   end Finalize;
   Top : Link;
   N : Link;
begin
   for I in 1 .. 3 loop
      N := new Node;
      N.Number := I;
      N.Next := Top;
      Top := N;
      N := null;
   end loop;
   Ada.Text_IO.Put_Line ("left");
end Main;
