procedure Main is
E : exception; E : exception;
begin
null;
end Main;
