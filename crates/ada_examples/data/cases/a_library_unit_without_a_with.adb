procedure Main is
type Link is access Run_Input;
begin null; end Main;
