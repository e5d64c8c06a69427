with Ada.Text_IO;
procedure Main is
procedure Hello is begin Ada.Text_IO.Put_Line ("hello"); end Hello;
begin Hello; Hello; end Main;
