with Ada.Finalization; with Ada.Text_IO;
procedure Main is
type Inner is new Ada.Finalization.Controlled with record Number : Integer := 1; end record;
procedure Initialize (Object : in out Inner);
procedure Adjust (Object : in out Inner);
procedure Finalize (Object : in out Inner);
type Outer is new Ada.Finalization.Controlled with record First : Inner; Second : Inner; end record;
procedure Initialize (Object : in out Outer);
procedure Adjust (Object : in out Outer);
procedure Finalize (Object : in out Outer);
type Plain is record Part : Outer; Flag : Boolean := True; end record;
procedure Initialize (Object : in out Inner) is begin Ada.Text_IO.Put_Line ("initialize a part"); end Initialize;
procedure Adjust (Object : in out Inner) is begin Ada.Text_IO.Put_Line ("adjust a part"); end Adjust;
procedure Finalize (Object : in out Inner) is begin Ada.Text_IO.Put_Line ("finalize a part"); Ada.Text_IO.Put_Line (Integer'Image (Object.Number)); end Finalize;
procedure Initialize (Object : in out Outer) is begin Ada.Text_IO.Put_Line ("initialize the whole"); end Initialize;
procedure Adjust (Object : in out Outer) is begin Ada.Text_IO.Put_Line ("adjust the whole"); end Adjust;
procedure Finalize (Object : in out Outer) is begin Ada.Text_IO.Put_Line ("finalize the whole"); end Finalize;
R : Plain;
begin
R.Part.Second.Number := 2;
Ada.Text_IO.Put_Line ("copy");
declare S : Plain := R; begin
S.Part.First.Number := 3;
Ada.Text_IO.Put_Line ("assign");
R.Part := S.Part;
Ada.Text_IO.Put_Line ("leave");
end;
end Main;
