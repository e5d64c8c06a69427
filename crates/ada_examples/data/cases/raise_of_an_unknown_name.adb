procedure Main is
begin
raise Nothing;
end Main;
