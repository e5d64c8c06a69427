with Run_Input;
procedure Main is
type Node is record Value : Integer := 0; end record; type Link is access Node;
A : Link := new Run_Input;
begin null; end Main;
