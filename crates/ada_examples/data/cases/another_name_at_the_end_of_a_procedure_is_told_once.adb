with Ada.Text_IO;
procedure Main is
procedure One is begin null; end Two;
begin One; end Main;
