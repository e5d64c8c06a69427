with Ada.Text_IO;
procedure Main is
procedure One (A : Integer) is begin A := 2; end One;
begin One (1); end Main;
