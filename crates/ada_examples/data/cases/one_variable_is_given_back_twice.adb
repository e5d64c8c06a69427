with Ada.Text_IO;
procedure Main is
procedure Two (A : in out Integer; B : in out Integer) is begin A := B; end Two;
X : Integer := 1;
begin Two (X, X); end Main;
