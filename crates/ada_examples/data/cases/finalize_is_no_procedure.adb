with Ada.Text_IO;
procedure Main is
procedure Finalize is begin null; end Finalize;
begin Finalize; end Main;
