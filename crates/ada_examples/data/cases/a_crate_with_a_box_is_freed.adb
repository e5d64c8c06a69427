with Ada.Finalization; with Ada.Text_IO; with Ada.Unchecked_Deallocation;
procedure Main is
   type Node;
   type Link is access Node;
   type Node is record Value : Integer := 0; Next : Link; end record;
   procedure Free is new Ada.Unchecked_Deallocation (Node, Link);
   type Box is new Ada.Finalization.Limited_Controlled with record Item : Link; end record;
   overriding procedure Finalize (Object : in out Box);
   type Crate is record Number : Integer := 0; Left : Box; Right : Box; end record;
   type Crate_Link is access Crate;
   procedure Free_Crate is new Ada.Unchecked_Deallocation (Crate, Crate_Link);
   overriding procedure Finalize (Object : in out Box) is
   begin
      if Object.Item /= null then
         Ada.Text_IO.Put_Line (Integer'Image (Object.Item.Value));
      end if;
      Free (Object.Item);
   exception
      when Constraint_Error => null;
   end Finalize;
   procedure Fill (C : in out Crate) is
   begin
      C.Left.Item := new Node'(Value => C.Number, Next => null);
      C.Right.Item := new Node'(Value => C.Number + 1, Next => null);
   end Fill;
   C : Crate_Link := new Crate;
begin
   C.Number := 4;
   Fill (C.all);
   Free_Crate (C);
   Ada.Text_IO.Put_Line ("behind");
end Main;
