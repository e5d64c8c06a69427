with Ada.Text_IO;
procedure Main is
Three : constant := 3;
procedure One (A : in out Integer) is begin A := 2; end One;
begin One (Three); end Main;
