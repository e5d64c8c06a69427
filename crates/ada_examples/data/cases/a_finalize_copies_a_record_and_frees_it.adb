with Ada.Finalization; with Ada.Text_IO; with Ada.Unchecked_Deallocation;
procedure Main is
   type Place is record Line : Integer := 1; Column : Integer := 2; end record;
   type Cell is record Value : Integer := 0; Lies : Place; end record;
   type Link is access Cell;
   procedure Free is new Ada.Unchecked_Deallocation (Cell, Link);
   type Mark is new Ada.Finalization.Limited_Controlled with record
      Last : Place;
      Held : Link;
   end record;
   overriding procedure Finalize (Object : in out Mark);
   overriding procedure Finalize (Object : in out Mark) is
   begin
      Object.Last := Object.Held.Lies;
      Free (Object.Held);
      Ada.Text_IO.Put_Line (Integer'Image (Object.Last.Line));
      Ada.Text_IO.Put_Line (Integer'Image (Object.Last.Column));
   exception
      when Constraint_Error => Ada.Text_IO.Put_Line ("nothing held");
   end Finalize;
   Empty : Mark;
begin
   declare
      Full : Mark;
   begin
      Full.Held := new Cell'(Value => 3, Lies => Full.Last);
      Full.Held.Lies.Column := 8;
   end;
   Ada.Text_IO.Put_Line ("left");
end Main;
