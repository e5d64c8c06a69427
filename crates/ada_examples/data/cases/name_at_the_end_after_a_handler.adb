procedure Main is
begin
null;
exception
when others => Nothing;
end Other;
