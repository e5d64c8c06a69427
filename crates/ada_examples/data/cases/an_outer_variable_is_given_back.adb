with Ada.Text_IO;
procedure Main is
X : Integer := 1;
begin declare procedure One (A : in out Integer) is begin A := 2; end One; procedure Two is begin One (X); end Two; begin Two; end; end Main;
