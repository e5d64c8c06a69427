with Ada.Text_IO;
procedure Main is
procedure Swap (A : in out Integer; B : in out Integer) is
T : Integer := A;
begin A := B; B := T; end Swap;
X : Integer := 1; Y : Integer := 2;
begin Swap (X, Y); Ada.Text_IO.Put_Line (Integer'Image (X)); Ada.Text_IO.Put_Line (Integer'Image (Y)); end Main;
