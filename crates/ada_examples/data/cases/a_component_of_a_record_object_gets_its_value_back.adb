with Ada.Text_IO;
with Ada.Unchecked_Deallocation;

procedure Main is
   type Place is record
      Line   : Integer := 1;
      Column : Integer := 2;
   end record;
   procedure Swap (I : in out Integer; J : in out Integer) is
      K : Integer := I;
   begin
      I := J;
      J := K;
   end Swap;
   P : Place;
   Q : Place;
begin
   Swap (P.Line, Q.Column);
   Ada.Text_IO.Put_Line (Integer'Image (P.Line));
   Ada.Text_IO.Put_Line (Integer'Image (Q.Column));
end Main;
