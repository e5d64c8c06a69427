with Ada.Finalization; with Ada.Text_IO; with Ada.Unchecked_Deallocation;
procedure Main is
   type Node;
   type Link is access Node;
   type Node is record Value : Integer := 0; Next : Link; end record;
   type List is new Ada.Finalization.Limited_Controlled with record Head : Link; end record;
   overriding procedure Initialize (Object : in out List);
   overriding procedure Finalize (Object : in out List);
   procedure Free is new Ada.Unchecked_Deallocation (Node, Link);
   overriding procedure Initialize (Object : in out List) is
   begin
      for I in 1 .. 3 loop
         declare
            First : Link := new Node'(Value => I, Next => null);
         begin
            First.Next := Object.Head;
            Object.Head := null;
            Object.Head := First;
         end;
      end loop;
   end Initialize;
   overriding procedure Finalize (Object : in out List) is
      Rest : Link;
   begin
      while Object.Head /= null loop
         Ada.Text_IO.Put_Line (Integer'Image (Object.Head.Value));
         Rest := Object.Head.Next;
         Object.Head.Next := null;
         Free (Object.Head);
         Object.Head := Rest;
         Rest := null;
      end loop;
   exception
      when Constraint_Error => null;
   end Finalize;
   L : List;
begin
   Ada.Text_IO.Put_Line ("built");
end Main;
