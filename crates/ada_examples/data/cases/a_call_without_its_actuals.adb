with Ada.Text_IO;
procedure Main is
procedure Two (A : Integer; B : Integer) is begin null; end Two;
begin Two; end Main;
