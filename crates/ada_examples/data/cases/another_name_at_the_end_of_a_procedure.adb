with Ada.Text_IO;
procedure Main is
procedure One is begin Nothing; end Two;
begin One; end Main;
