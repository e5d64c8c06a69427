with Ada.Text_IO;
procedure Main is
procedure Outer is
procedure Inner is begin Outer; end Inner;
begin Inner; end Outer;
begin Outer; end Main;
