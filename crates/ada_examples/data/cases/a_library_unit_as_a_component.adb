with Run_Input;
procedure Main is
type Node is record Value : Run_Input; end record;
begin null; end Main;
