with Ada.Text_IO;
procedure Main is
procedure Back is begin Main; end Back;
begin Back; end Main;
