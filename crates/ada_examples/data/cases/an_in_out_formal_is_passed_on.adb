with Ada.Text_IO;
procedure Main is
procedure One (A : in out Integer) is begin A := A * 2; end One;
procedure Two (B : in out Integer) is begin One (B); One (B); end Two;
X : Integer := 3;
begin Two (X); Ada.Text_IO.Put_Line (Integer'Image (X)); end Main;
