with Ada.Text_IO;
procedure Main is
E : exception;
procedure Fails is begin raise E; exception when Storage_Error => null; end Fails;
begin Fails; Ada.Text_IO.Put_Line ("never"); end Main;
