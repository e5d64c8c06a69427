with Ada.Text_IO;
procedure Main is
procedure One is begin null; end One;
E : exception;
begin One; end Main;
