procedure Main is
N : Integer := 0;
begin
raise N;
end Main;
