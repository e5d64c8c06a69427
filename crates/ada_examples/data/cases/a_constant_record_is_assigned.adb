with Ada.Text_IO;
with Ada.Unchecked_Deallocation;

procedure Main is
   type Place is record
      Line   : Integer := 1;
      Column : Integer := 2;
   end record;
   procedure Turn (P : Place) is
   begin
      P.Line := 2;
   end Turn;
begin
   null;
end Main;
