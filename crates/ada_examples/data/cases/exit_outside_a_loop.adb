procedure Main is begin
if True then exit; end if; end Main;
