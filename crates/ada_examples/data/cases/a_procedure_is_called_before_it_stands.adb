with Ada.Text_IO;
procedure Main is
procedure One is begin Two; end One;
procedure Two is begin null; end Two;
begin One; end Main;
