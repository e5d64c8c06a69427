with Ada.Finalization; with Ada.Text_IO; with Ada.Unchecked_Deallocation;
procedure Main is
   type Node;
   type Link is access Node;
   type Node is record Value : Integer := 0; Next : Link; end record;
   type List is new Ada.Finalization.Controlled with record Head : Link; end record;
   overriding procedure Finalize (Object : in out List);
   procedure Free is new Ada.Unchecked_Deallocation (Node, Link);
   procedure Push (L : in out List; Value : Integer) is
   begin
      L.Head := new Node'(Value => Value, Next => L.Head);
   end Push;
   overriding procedure Finalize (Object : in out List) is
      First : Link;
      Rest  : Link;
   begin
      First := Object.Head;
      Object.Head := null;
      while First /= null loop
         Ada.Text_IO.Put_Line (Integer'Image (First.Value));
         Rest := First.Next;
         First.Next := null;
         Free (First);
         First := Rest;
         Rest := null;
      end loop;
   exception
      when Constraint_Error => Ada.Text_IO.Put_Line ("not reached");
   end Finalize;
   Outer : List;
begin
   Push (Outer, 1);
   declare
      Inner : List;
   begin
      Push (Inner, 2);
      Push (Inner, 3);
      Ada.Text_IO.Put_Line ("filled");
   end;
   Ada.Text_IO.Put_Line ("inner list freed");
end Main;
