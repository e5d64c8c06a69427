with Ada.Text_IO;
procedure Main is
procedure One (A : Integer) is begin null; end One;
begin One ("a"); end Main;
