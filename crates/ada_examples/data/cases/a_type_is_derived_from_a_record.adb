procedure Main is
type Node is record Value : Integer := 0; end record;
type Other is new Node with null record;
begin
null;
end Main;
