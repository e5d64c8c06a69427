with Ada.Text_IO;
procedure Main is
begin loop declare procedure One is begin exit; end One; begin One; end; exit; end loop; end Main;
