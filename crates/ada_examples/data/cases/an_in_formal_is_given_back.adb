with Ada.Text_IO;
procedure Main is
procedure One (A : in out Integer) is begin A := 2; end One;
procedure Two (B : Integer) is begin One (B); end Two;
X : Integer := 3;
begin Two (X); end Main;
