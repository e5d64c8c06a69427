with Ada.Finalization; with Ada.Text_IO; with Ada.Unchecked_Deallocation;
procedure Main is
   type Node;
   type Link is access Node;
   type Node is record Value : Integer := 0; Next : Link; end record;
   procedure Free is new Ada.Unchecked_Deallocation (Node, Link);
   type Box is new Ada.Finalization.Limited_Controlled with record Item : Link; end record;
   overriding procedure Finalize (Object : in out Box);
   procedure Drop (Item : in out Link) is
   begin
      Free (Item);
   end Drop;
   overriding procedure Finalize (Object : in out Box) is
      Rest : Link;
   begin
      Rest := Object.Item;
      Object.Item := null;
      if Rest /= null then
         Ada.Text_IO.Put_Line (Integer'Image (Rest.Value));
      end if;
      Drop (Rest);
   exception
      when Constraint_Error => null;
   end Finalize;
begin
   for I in 1 .. 2 loop
      declare
         type Box_Link is access Box;
         A : Box_Link := new Box;
         B : Box_Link := new Box;
         C : Box;
      begin
         A.Item := new Node'(Value => I, Next => null);
         B.Item := new Node'(Value => I + 10, Next => null);
         C.Item := new Node'(Value => I + 20, Next => null);
      end;
   end loop;
   Ada.Text_IO.Put_Line ("left");
end Main;
