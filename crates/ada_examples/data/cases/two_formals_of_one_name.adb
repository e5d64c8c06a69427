with Ada.Text_IO;
procedure Main is
procedure One (A : Integer; A : Boolean) is begin null; end One;
begin One (1, True); end Main;
