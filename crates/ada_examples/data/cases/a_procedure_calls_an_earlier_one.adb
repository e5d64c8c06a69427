with Ada.Text_IO;
procedure Main is
procedure One is begin Ada.Text_IO.Put_Line ("one"); end One;
procedure Two is begin One; One; end Two;
procedure Four is begin Two; Two; end Four;
begin Four; end Main;
