with Ada.Text_IO;
with Ada.Unchecked_Deallocation;

procedure Main is
   type Place is record
      Line   : Integer := 1;
      Column : Integer := 2;
   end record;
   type Sheet is record
      Where : Place;
   end record;
   procedure Turn (S : Sheet) is
   begin
      S.Where.Line := 2;
   end Turn;
begin
   null;
end Main;
