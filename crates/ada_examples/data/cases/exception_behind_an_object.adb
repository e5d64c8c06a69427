procedure Main is
N : Integer := 0; E : exception;
begin
null;
end Main;
