with Ada.Text_IO;
procedure Main is
procedure One (A : in out Integer) is begin A := 2; end One;
X : Integer := 1;
begin One (X, X); end Main;
