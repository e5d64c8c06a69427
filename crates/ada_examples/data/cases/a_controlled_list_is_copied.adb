with Ada.Finalization; with Ada.Unchecked_Deallocation;
procedure Main is
   type Node;
   type Link is access Node;
   type Node is record Value : Integer := 0; Next : Link; end record;
   type List is new Ada.Finalization.Controlled with record Head : Link; end record;
   overriding procedure Finalize (Object : in out List);
   procedure Free is new Ada.Unchecked_Deallocation (Node, Link);
   overriding procedure Finalize (Object : in out List) is
      First : Link;
      Rest  : Link;
   begin
      First := Object.Head;
      Object.Head := null;
      while First /= null loop
         Rest := First.Next;
         First.Next := null;
         Free (First);
         First := Rest;
         Rest := null;
      end loop;
   exception
      when Constraint_Error => null;
   end Finalize;
   A : List;
   B : List;
begin
   A.Head := new Node'(Value => 1, Next => null);
   B := A;
end Main;
