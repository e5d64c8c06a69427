with Ada.Finalization;
procedure Main is
   type Disc;
   type Peg is access Disc;
   type Disc is record Width : Integer := 0; Under : Peg; end record;
   type Pile is new Ada.Finalization.Controlled with record Top : Peg; Spare : Peg; end record;
   overriding procedure Adjust (Object : in out Pile);
   overriding procedure Adjust (Object : in out Pile) is
   begin
      Object.Spare := null;
      Object.Top := new Disc;
      Object.Spare := new Disc'(Width => 2, Under => Object.Top);
   exception
      when others =>
         Object.Spare := null;
         Object.Top := null;
   end Adjust;
begin
   null;
end Main;
