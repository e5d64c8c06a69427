procedure Main is
N : Integer := 2 * -1;
begin null; end Main;
