with Ada.Finalization; with Ada.Text_IO; with Ada.Unchecked_Deallocation;
procedure Main is
   type Node;
   type Link is access Node;
   type Node is record Value : Integer := 0; Next : Link; end record;
   type List is new Ada.Finalization.Limited_Controlled with record Head : Link; end record;
   overriding procedure Finalize (Object : in out List);
   procedure Free is new Ada.Unchecked_Deallocation (Node, Link);
   overriding procedure Finalize (Object : in out List) is
   begin
      while Object.Head /= null loop
         Ada.Text_IO.Put_Line (Integer'Image (Object.Head.Value));
         declare
            Rest : Link;
         begin
            Rest := Object.Head.Next;
            Object.Head.Next := null;
            Free (Object.Head);
            Object.Head := Rest;
         end;
      end loop;
   exception
      when Constraint_Error => null;
   end Finalize;
begin
   for Turn in 1 .. 2 loop
      declare
         Outer : List;
      begin
         Outer.Head := new Node'(Value => 10 * Turn, Next => null);
         declare
            Inner : List;
         begin
            Inner.Head := new Node'(Value => 10 * Turn + 1, Next => null);
            Inner.Head := new Node'(Value => 10 * Turn + 2, Next => Inner.Head);
            Ada.Text_IO.Put_Line ("inside");
         end;
         Ada.Text_IO.Put_Line ("between");
         Outer.Head := new Node'(Value => 10 * Turn + 3, Next => Outer.Head);
      end;
      Ada.Text_IO.Put_Line ("outside");
   end loop;
end Main;
