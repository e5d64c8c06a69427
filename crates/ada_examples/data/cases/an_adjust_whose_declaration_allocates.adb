with Ada.Finalization; with Ada.Text_IO; with Ada.Unchecked_Deallocation;
procedure Main is
   type Cell is record Value : Integer := 7; end record;
   type Link is access Cell;
   type Count is new Ada.Finalization.Controlled with record Times : Integer := 0; end record;
   overriding procedure Adjust (Object : in out Count);
   procedure Free is new Ada.Unchecked_Deallocation (Cell, Link);
   overriding procedure Adjust (Object : in out Count) is
      Step : Link := new Cell'(Value => 1);
   begin
      Object.Times := Object.Times + Step.Value;
      Free (Step);
   exception
      when others => null;
   end Adjust;
   A : Count;
   B : Count;
begin
   B := A;
   Ada.Text_IO.Put_Line (Integer'Image (B.Times));
end Main;
