with Ada.Text_IO;
with Ada.Unchecked_Deallocation;

procedure Main is
   type Place is record
      Line   : Integer := 1;
      Column : Integer := 2;
   end record;
   type Sheet is record
      Number : Integer := 7;
      Where  : Place;
   end record;
   procedure Shift (P : in out Place; Far : Integer) is
   begin
      P.Column := P.Column + Far;
   end Shift;
   procedure Turn (S : in out Sheet) is
   begin
      Shift (S.Where, S.Number);
      S.Number := S.Where.Column;
   end Turn;
   S : Sheet;
begin
   Turn (S);
   Ada.Text_IO.Put_Line (Integer'Image (S.Number));
   Ada.Text_IO.Put_Line (Integer'Image (S.Where.Line));
   Ada.Text_IO.Put_Line (Integer'Image (S.Where.Column));
end Main;
