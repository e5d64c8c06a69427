with Ada.Finalization; with Ada.Text_IO; with Ada.Unchecked_Deallocation;
procedure Main is
   type Node;
   type Link is access Node;
   type Node is record Value : Integer := 0; Next : Link; end record;
   type List is new Ada.Finalization.Limited_Controlled with record Head : Link; Count : Integer := 0; end record;
   overriding procedure Initialize (Object : in out List);
   overriding procedure Finalize (Object : in out List);
   procedure Free is new Ada.Unchecked_Deallocation (Node, Link);
   overriding procedure Initialize (Object : in out List) is
   begin
      Object.Head := new Node'(Value => 2, Next => null);
      Object.Count := 1;
      declare
         First : Link;
      begin
         First := new Node'(Value => 1, Next => null);
         First.Next := Object.Head;
         Object.Head := null;
         Object.Head := First;
      end;
      Object.Count := 2;
   exception
      when others => null;
   end Initialize;
   overriding procedure Finalize (Object : in out List) is
      Rest : Link;
   begin
      while Object.Head /= null loop
         Ada.Text_IO.Put_Line (Integer'Image (Object.Head.Value));
         Rest := Object.Head.Next;
         Object.Head.Next := null;
         Free (Object.Head);
         Object.Head := Rest;
         Rest := null;
      end loop;
   exception
      when Constraint_Error => null;
   end Finalize;
   L : List;
begin
   Ada.Text_IO.Put_Line (Integer'Image (L.Count));
end Main;
