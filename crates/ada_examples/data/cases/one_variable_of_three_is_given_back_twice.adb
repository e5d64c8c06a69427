with Ada.Text_IO;
procedure Main is
procedure Three (A : in out Integer; N : Integer; B : in out Integer) is begin A := B + N; end Three;
X : Integer := 1; Y : Integer := 2;
begin Three (X, Y, Y); Three (X, X, Y); Three (Y, X, Y); end Main;
