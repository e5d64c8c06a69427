with Ada.Text_IO;
procedure Main is
procedure Add (A : in out Integer; N : Integer) is begin A := A + N; A := A + N; end Add;
X : Integer := 2;
begin Add (X, X); Ada.Text_IO.Put_Line (Integer'Image (X)); Add (X, X + 1); Ada.Text_IO.Put_Line (Integer'Image (X)); end Main;
