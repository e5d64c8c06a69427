with Ada.Text_IO;
procedure Main is
procedure Outer (N : Integer) is
procedure Inner is begin Ada.Text_IO.Put_Line (Integer'Image (N)); end Inner;
begin Inner; end Outer;
begin Outer (1); end Main;
