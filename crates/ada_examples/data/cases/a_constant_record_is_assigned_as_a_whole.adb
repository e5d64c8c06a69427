with Ada.Text_IO;
with Ada.Unchecked_Deallocation;

procedure Main is
   type Place is record
      Line   : Integer := 1;
      Column : Integer := 2;
   end record;
   procedure Turn (P : Place; Q : Place) is
   begin
      P := Q;
   end Turn;
begin
   null;
end Main;
