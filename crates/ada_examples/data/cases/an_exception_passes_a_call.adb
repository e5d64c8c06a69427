with Ada.Text_IO;
procedure Main is
E : exception;
procedure Fails (N : Integer) is begin if N > 1 then raise E; end if; Ada.Text_IO.Put_Line ("fine"); end Fails;
procedure Through (N : Integer) is begin Fails (N); exception when Constraint_Error => Ada.Text_IO.Put_Line ("wrong"); end Through;
begin Through (1); Through (2); exception when E => Ada.Text_IO.Put_Line ("caught"); end Main;
