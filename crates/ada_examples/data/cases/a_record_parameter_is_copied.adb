with Ada.Text_IO;
with Ada.Unchecked_Deallocation;

procedure Main is
   type Place is record
      Line   : Integer := 1;
      Column : Integer := 2;
   end record;
   procedure Set (P : in out Place; Q : Place) is
   begin
      P := Q;
      P.Line := P.Line + 1;
   end Set;
   P : Place;
   Q : Place;
begin
   Q.Column := 6;
   Set (P, Q);
   Ada.Text_IO.Put_Line (Integer'Image (P.Line));
   Ada.Text_IO.Put_Line (Integer'Image (P.Column));
   Ada.Text_IO.Put_Line (Integer'Image (Q.Line));
end Main;
